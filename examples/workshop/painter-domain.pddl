; The painter: paints pieces that are shaped and not rough, and dries them.
(define (domain workshop)
 (:requirements :factored-privacy :typing :negative-preconditions :action-costs)
 (:types piece brush)
 (:predicates
  (shaped ?p - piece)
  (rough ?p - piece)
  (painted ?p - piece)
  (wet ?p - piece)
  (:private (dipped ?b - brush)))
 (:functions (total-cost) - number)
 (:action sand
  :parameters (?p - piece)
  :precondition (rough ?p)
  :effect (and (not (rough ?p)) (increase (total-cost) 6)))
 (:action dip
  :parameters (?b - brush)
  :effect (and (dipped ?b) (increase (total-cost) 2)))
 (:action paint
  :parameters (?p - piece ?b - brush)
  :precondition (and (shaped ?p) (not (rough ?p)) (dipped ?b))
  :effect (and (painted ?p) (wet ?p) (not (dipped ?b)) (increase (total-cost) 1)))
 (:action dry
  :parameters (?p - piece)
  :precondition (wet ?p)
  :effect (and (not (wet ?p)) (increase (total-cost) 2))))
