; The airplane stands on the hill between the two towns; it has no goal of its own.
(define (problem sky)
 (:domain logistics)
 (:objects
  medicine letters - parcel
  (:private white-plane - airplane))
 (:init
  (at white-plane hill-field)
  (route hill-field north-field) (route north-field hill-field)
  (route hill-field south-field) (route south-field hill-field)
  (route north-field south-field) (route south-field north-field)
  (= (total-cost) 0)
  (= (distance hill-field north-field) 5)
  (= (distance north-field hill-field) 5)
  (= (distance hill-field south-field) 6)
  (= (distance south-field hill-field) 6)
  (= (distance north-field south-field) 14)
  (= (distance south-field north-field) 14))
 (:goal (and))
 (:metric minimize (total-cost)))
