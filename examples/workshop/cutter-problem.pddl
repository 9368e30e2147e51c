; The saw is blunt. The cutter wants no dust to be left.
(define (problem cutter)
 (:domain workshop)
 (:objects
  tray - piece
  (:private fine-saw - saw))
 (:init)
 (:goal (not (dusty)))
 (:metric minimize (total-cost)))
