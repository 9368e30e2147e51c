; The painter has one brush, and no goal.
(define (problem painter)
 (:domain workshop)
 (:objects
  tray - piece
  (:private wide-brush - brush))
 (:init)
 (:goal (and))
 (:metric minimize (total-cost)))
