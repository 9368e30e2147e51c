; The van: carries parcels between the market, the bridge and the station.
(define (domain couriers)
 (:requirements :factored-privacy :typing :action-costs)
 (:types place parcel)
 (:predicates
  (at ?p - parcel ?where - place)
  (:private
   (parked ?where - place)
   (inside ?p - parcel)
   (street ?from ?to - place)))
 (:functions (total-cost) - number
  (:private (minutes ?from ?to - place) - number))
 (:action drive
  :parameters (?from ?to - place)
  :precondition (and (parked ?from) (street ?from ?to))
  :effect (and (parked ?to) (not (parked ?from))
   (increase (total-cost) (minutes ?from ?to))))
 (:action load
  :parameters (?p - parcel ?where - place)
  :precondition (and (parked ?where) (at ?p ?where))
  :effect (and (inside ?p) (not (at ?p ?where)) (increase (total-cost) 1)))
 (:action unload
  :parameters (?p - parcel ?where - place)
  :precondition (and (parked ?where) (inside ?p))
  :effect (and (at ?p ?where) (not (inside ?p)) (increase (total-cost) 1))))
