; The south town: letters wait at the market, and the school waits for medicine.
(define (problem south-town)
 (:domain logistics)
 (:objects
  medicine letters - parcel
  south-field - airport
  (:private blue-truck - truck market school - place))
 (:init
  (at blue-truck market)
  (at letters market)
  (empty blue-truck)
  (road market school) (road school market)
  (road market south-field) (road south-field market)
  (road school south-field) (road south-field school)
  (= (total-cost) 0)
  (= (distance market school) 1) (= (distance school market) 1)
  (= (distance market south-field) 4) (= (distance south-field market) 4)
  (= (distance school south-field) 4) (= (distance south-field school) 4))
 (:goal (at medicine school))
 (:metric minimize (total-cost)))
