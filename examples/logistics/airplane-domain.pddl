; The airplane: it carries parcels between airports and pays a fee at each landing.
(define (domain logistics)
 (:requirements :factored-privacy :typing :action-costs)
 (:types place parcel vehicle - object airport - place airplane - vehicle)
 (:constants
  north-field south-field - airport
  (:private hill-field - airport))
 (:predicates
  (at ?thing - (either parcel vehicle) ?where - place)
  (:private
   (aboard ?cargo - parcel ?carrier - airplane)
   (route ?from ?to - airport)))
 (:functions (total-cost) - number
  (:private (distance ?from ?to - airport) - number))
 (:action fly
  :agent ?p - airplane
  :parameters (?from ?to - airport)
  :precondition (and (at ?p ?from) (route ?from ?to))
  :effect (and (at ?p ?to) (not (at ?p ?from))
   (increase (total-cost) (distance ?from ?to))
   (increase (total-cost) 2)))
 (:action board
  :agent ?p - airplane
  :parameters (?cargo - parcel ?where - airport)
  :precondition (and (at ?p ?where) (at ?cargo ?where))
  :effect (and (aboard ?cargo ?p) (not (at ?cargo ?where))
   (increase (total-cost) 2)))
 (:action drop
  :agent ?p - airplane
  :parameters (?cargo - parcel ?where - airport)
  :precondition (and (at ?p ?where) (aboard ?cargo ?p))
  :effect (and (at ?cargo ?where) (not (aboard ?cargo ?p))
   (increase (total-cost) 2))))
