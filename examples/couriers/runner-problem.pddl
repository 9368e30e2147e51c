; The runner waits at the station. The house, where the basket is wanted, is known to the runner alone.
(define (problem runner)
 (:domain couriers)
 (:objects
  basket - parcel
  market bridge station - place
  (:private house - place))
 (:init
  (waits station) (empty-handed)
  (path station house) (path house station)
  (path station market) (path market station)
  (path station bridge) (path bridge station)
  (path market house) (path house market)
  (= (minutes station house) 2) (= (minutes house station) 2)
  (= (minutes station market) 6) (= (minutes market station) 6)
  (= (minutes station bridge) 5) (= (minutes bridge station) 5)
  (= (minutes market house) 9) (= (minutes house market) 9))
 (:goal (at basket house))
 (:metric minimize (total-cost)))
