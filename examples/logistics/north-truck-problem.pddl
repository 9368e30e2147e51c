; The north town: medicine waits at the pier, and the mill waits for letters.
(define (problem north-town)
 (:domain logistics)
 (:objects
  medicine letters - parcel
  north-field - airport
  (:private red-truck - truck mill pier - place))
 (:init
  (at red-truck mill)
  (at medicine pier)
  (road mill pier) (road pier mill)
  (road mill north-field) (road north-field mill)
  (road pier north-field) (road north-field pier)
  (= (total-cost) 0)
  (= (distance mill pier) 2) (= (distance pier mill) 2)
  (= (distance mill north-field) 3) (= (distance north-field mill) 3)
  (= (distance pier north-field) 6) (= (distance north-field pier) 6))
 (:goal (at letters mill))
 (:metric minimize (total-cost)))
