; The cutter: cuts pieces with a sharp saw, which leaves dust, or breaks them, which leaves rough edges.
(define (domain workshop)
 (:requirements :factored-privacy :typing :negative-preconditions :action-costs)
 (:types piece saw)
 (:predicates
  (shaped ?p - piece)
  (rough ?p - piece)
  (:private
   (sharp ?s - saw)
   (dusty)))
 (:functions (total-cost) - number)
 (:action sharpen
  :parameters (?s - saw)
  :precondition (not (sharp ?s))
  :effect (and (sharp ?s) (increase (total-cost) 3)))
 (:action cut
  :parameters (?p - piece ?s - saw)
  :precondition (and (sharp ?s) (not (shaped ?p)))
  :effect (and (shaped ?p) (dusty) (not (sharp ?s)) (increase (total-cost) 2)))
 (:action break
  :parameters (?p - piece)
  :precondition (not (shaped ?p))
  :effect (and (shaped ?p) (rough ?p) (increase (total-cost) 1)))
 (:action sweep
  :parameters ()
  :effect (and (not (dusty)) (increase (total-cost) 1))))
