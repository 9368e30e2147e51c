; The packer: folds boxes and packs painted pieces that are not wet.
(define (domain workshop)
 (:requirements :factored-privacy :typing :negative-preconditions :action-costs)
 (:types piece box)
 (:predicates
  (painted ?p - piece)
  (wet ?p - piece)
  (:private
   (folded ?b - box)
   (packed ?p - piece)))
 (:functions (total-cost) - number)
 (:action fold
  :parameters (?b - box)
  :precondition (not (folded ?b))
  :effect (and (folded ?b) (increase (total-cost) 1)))
 (:action pack
  :parameters (?p - piece ?b - box)
  :precondition (and (painted ?p) (not (wet ?p)) (folded ?b))
  :effect (and (packed ?p) (not (folded ?b)) (increase (total-cost) 2))))
