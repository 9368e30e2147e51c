; The books, which the depot wants, stand on the only pallet of the hall; lamps are to stand there.
(define (problem distributor)
 (:domain depots)
 (:objects
  lorry - truck
  lamps books - crate
  (:private hall-pallet - pallet))
 (:init
  (free hall-hoist)
  (on books hall-pallet)
  (clear books)
  (= (total-cost) 0)
  (= (weight lamps) 2) (= (weight books) 3))
 (:goal (on lamps hall-pallet))
 (:metric minimize (total-cost)))
