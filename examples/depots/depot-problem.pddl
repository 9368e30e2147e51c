; The lamps, which the hall wants, stand under scrap; books are to take their place.
(define (problem depot)
 (:domain depots)
 (:objects
  lorry - truck
  lamps books - crate
  (:private
   yard-hoist - hoist
   left-pallet right-pallet - pallet
   scrap - crate))
 (:init
  (free yard-hoist)
  (on lamps left-pallet) (on scrap lamps)
  (clear scrap) (clear right-pallet)
  (= (total-cost) 0))
 (:goal (on books left-pallet))
 (:metric minimize (total-cost)))
