; The lorry leaves its garage and has to be there again at the end.
(define (problem driver)
 (:domain depots)
 (:objects
  lorry - truck
  yard hall - place
  (:private garage junction - place))
 (:init
  (at lorry garage)
  (road garage yard) (road yard garage)
  (road yard junction) (road junction yard)
  (road junction hall) (road hall junction)
  (road yard hall) (road hall yard)
  (= (total-cost) 0)
  (= (distance garage yard) 3) (= (distance yard garage) 3)
  (= (distance yard junction) 4) (= (distance junction yard) 4)
  (= (distance junction hall) 5) (= (distance hall junction) 5)
  (= (distance yard hall) 12) (= (distance hall yard) 12))
 (:goal (at lorry garage))
 (:metric minimize (total-cost)))
