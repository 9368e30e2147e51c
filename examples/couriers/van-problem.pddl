; The van leaves its garage, from which the bridge is near and the market far.
(define (problem van)
 (:domain couriers)
 (:objects
  basket - parcel
  market bridge station - place
  (:private garage - place))
 (:init
  (parked garage)
  (street garage market) (street market garage)
  (street garage bridge) (street bridge garage)
  (street market station) (street station market)
  (street bridge station) (street station bridge)
  (= (minutes garage market) 6) (= (minutes market garage) 6)
  (= (minutes garage bridge) 1) (= (minutes bridge garage) 1)
  (= (minutes market station) 3) (= (minutes station market) 3)
  (= (minutes bridge station) 3) (= (minutes station bridge) 3))
 (:goal (and))
 (:metric minimize (total-cost)))
