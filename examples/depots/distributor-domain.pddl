; The distributor: its hoist works in the hall, and lifting and loading cost a crate's weight.
(define (domain depots)
 (:requirements :factored-privacy :typing :action-costs)
 (:types place truck hoist surface - object pallet crate - surface)
 (:constants hall - place (:private hall-hoist - hoist))
 (:predicates
  (at ?t - truck ?where - place)
  (in ?c - crate ?t - truck)
  (:private
   (free ?h - hoist)
   (holds ?h - hoist ?c - crate)
   (on ?c - crate ?under - surface)
   (clear ?top - surface)))
 (:functions (total-cost) - number
  (:private (weight ?c - crate) - number))
 (:action lift
  :parameters (?c - crate ?under - surface)
  :precondition (and (free hall-hoist) (clear ?c) (on ?c ?under))
  :effect (and (holds hall-hoist ?c) (clear ?under)
   (not (free hall-hoist)) (not (clear ?c)) (not (on ?c ?under))
   (increase (total-cost) (weight ?c))))
 (:action lower
  :parameters (?c - crate ?under - surface)
  :precondition (and (holds hall-hoist ?c) (clear ?under))
  :effect (and (free hall-hoist) (clear ?c) (on ?c ?under)
   (not (holds hall-hoist ?c)) (not (clear ?under))
   (increase (total-cost) 1)))
 (:action load
  :parameters (?c - crate ?t - truck)
  :precondition (and (holds hall-hoist ?c) (at ?t hall))
  :effect (and (in ?c ?t) (free hall-hoist) (not (holds hall-hoist ?c))
   (increase (total-cost) (weight ?c))))
 (:action unload
  :parameters (?c - crate ?t - truck)
  :precondition (and (free hall-hoist) (at ?t hall) (in ?c ?t))
  :effect (and (holds hall-hoist ?c) (not (free hall-hoist)) (not (in ?c ?t))
   (increase (total-cost) 1))))
