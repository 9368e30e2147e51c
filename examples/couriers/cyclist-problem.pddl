; The basket is on the bicycle at the harbour. The market is nearer than the bridge.
(define (problem cyclist)
 (:domain couriers)
 (:objects
  basket - parcel
  market bridge - place
  (:private bicycle - vehicle harbour - place))
 (:init
  (stands bicycle harbour) (on basket bicycle)
  (lane harbour market) (lane market harbour)
  (lane harbour bridge) (lane bridge harbour)
  (= (minutes harbour market) 2) (= (minutes market harbour) 2)
  (= (minutes harbour bridge) 4) (= (minutes bridge harbour) 4))
 (:goal (and))
 (:metric minimize (total-cost)))
