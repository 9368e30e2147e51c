; The driver: drives the truck along the roads, of which the others know only the two ends.
(define (domain depots)
 (:requirements :factored-privacy :typing :action-costs)
 (:types place truck - object)
 (:predicates
  (at ?t - truck ?where - place)
  (:private (road ?from ?to - place)))
 (:functions (total-cost) - number
  (:private (distance ?from ?to - place) - number))
 (:action drive
  :agent ?t - truck
  :parameters (?from ?to - place)
  :precondition (and (at ?t ?from) (road ?from ?to))
  :effect (and (at ?t ?to) (not (at ?t ?from))
   (increase (total-cost) (distance ?from ?to)))))
