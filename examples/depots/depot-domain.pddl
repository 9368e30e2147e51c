; The depot: its hoist takes crates from its stacks to a truck in the yard, and back.
(define (domain depots)
 (:requirements :factored-privacy :typing :action-costs)
 (:types place truck hoist pallet crate - object)
 (:constants yard - place)
 (:predicates
  (at ?t - truck ?where - place)
  (in ?c - crate ?t - truck)
  (:private
   (free ?h - hoist)
   (holds ?h - hoist ?c - crate)
   (on ?c - crate ?under - (either pallet crate))
   (clear ?top - (either pallet crate))))
 (:functions (total-cost) - number)
 (:action lift
  :agent ?h - hoist
  :parameters (?c - crate ?under - (either pallet crate))
  :precondition (and (free ?h) (clear ?c) (on ?c ?under))
  :effect (and (holds ?h ?c) (clear ?under)
   (not (free ?h)) (not (clear ?c)) (not (on ?c ?under))
   (increase (total-cost) 1)))
 (:action lower
  :agent ?h - hoist
  :parameters (?c - crate ?under - (either pallet crate))
  :precondition (and (holds ?h ?c) (clear ?under))
  :effect (and (free ?h) (clear ?c) (on ?c ?under)
   (not (holds ?h ?c)) (not (clear ?under))
   (increase (total-cost) 1)))
 (:action load
  :agent ?h - hoist
  :parameters (?c - crate ?t - truck)
  :precondition (and (holds ?h ?c) (at ?t yard))
  :effect (and (in ?c ?t) (free ?h) (not (holds ?h ?c))
   (increase (total-cost) 2)))
 (:action unload
  :agent ?h - hoist
  :parameters (?c - crate ?t - truck)
  :precondition (and (free ?h) (at ?t yard) (in ?c ?t))
  :effect (and (holds ?h ?c) (not (free ?h)) (not (in ?c ?t))
   (increase (total-cost) 2))))
