; The packer wants the tray to be packed.
(define (problem packer)
 (:domain workshop)
 (:objects
  tray - piece
  (:private carton - box))
 (:init)
 (:goal (packed tray))
 (:metric minimize (total-cost)))
