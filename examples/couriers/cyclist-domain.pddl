; The cyclist: brings parcels from the harbour, which only the cyclist knows, to places in the town.
(define (domain couriers)
 (:requirements :factored-privacy :typing :action-costs)
 (:types place parcel vehicle)
 (:predicates
  (at ?p - parcel ?where - place)
  (:private
   (stands ?v - vehicle ?where - place)
   (on ?p - parcel ?v - vehicle)
   (lane ?from ?to - place)))
 (:functions (total-cost) - number
  (:private (minutes ?from ?to - place) - number))
 (:action ride
  :parameters (?v - vehicle ?from ?to - place)
  :precondition (and (stands ?v ?from) (lane ?from ?to))
  :effect (and (stands ?v ?to) (not (stands ?v ?from))
   (increase (total-cost) (minutes ?from ?to))))
 (:action take
  :parameters (?p - parcel ?v - vehicle ?where - place)
  :precondition (and (stands ?v ?where) (at ?p ?where))
  :effect (and (on ?p ?v) (not (at ?p ?where)) (increase (total-cost) 1)))
 (:action leave
  :parameters (?p - parcel ?v - vehicle ?where - place)
  :precondition (and (stands ?v ?where) (on ?p ?v))
  :effect (and (at ?p ?where) (not (on ?p ?v)) (increase (total-cost) 1))))
