; The runner: carries one parcel at a time, on foot, along paths that the others do not know.
(define (domain couriers)
 (:requirements :factored-privacy :typing :action-costs)
 (:types place parcel)
 (:predicates
  (at ?p - parcel ?where - place)
  (:private
   (waits ?where - place)
   (holds ?p - parcel)
   (empty-handed)
   (path ?from ?to - place)))
 (:functions (total-cost) - number
  (:private (minutes ?from ?to - place) - number))
 (:action run
  :parameters (?from ?to - place)
  :precondition (and (waits ?from) (path ?from ?to))
  :effect (and (waits ?to) (not (waits ?from))
   (increase (total-cost) (minutes ?from ?to))))
 (:action take
  :parameters (?p - parcel ?where - place)
  :precondition (and (waits ?where) (at ?p ?where) (empty-handed))
  :effect (and (holds ?p) (not (at ?p ?where)) (not (empty-handed))
   (increase (total-cost) 1)))
 (:action leave
  :parameters (?p - parcel ?where - place)
  :precondition (and (waits ?where) (holds ?p))
  :effect (and (at ?p ?where) (not (holds ?p)) (empty-handed)
   (increase (total-cost) 1))))
