; The truck of the north town: it carries parcels between the places of its town.
(define (domain logistics)
 (:requirements :factored-privacy :typing :action-costs)
 (:types place parcel vehicle - object airport - place truck - vehicle)
 (:predicates
  (at ?thing - (either parcel vehicle) ?where - place)
  (:private
   (in ?cargo - parcel ?carrier - truck)
   (road ?from ?to - place)))
 (:functions (total-cost) - number
  (:private (distance ?from ?to - place) - number))
 (:action drive
  :agent ?t - truck
  :parameters (?from ?to - place)
  :precondition (and (at ?t ?from) (road ?from ?to))
  :effect (and (at ?t ?to) (not (at ?t ?from))
   (increase (total-cost) (distance ?from ?to))))
 (:action load
  :agent ?t - truck
  :parameters (?cargo - parcel ?where - place)
  :precondition (and (at ?t ?where) (at ?cargo ?where))
  :effect (and (in ?cargo ?t) (not (at ?cargo ?where))
   (increase (total-cost) 1)))
 (:action unload
  :agent ?t - truck
  :parameters (?cargo - parcel ?where - place)
  :precondition (and (at ?t ?where) (in ?cargo ?t))
  :effect (and (at ?cargo ?where) (not (in ?cargo ?t))
   (increase (total-cost) 1))))
