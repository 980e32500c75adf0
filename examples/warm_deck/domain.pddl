(define (domain campaign)
  (:requirements :strips :fluents)
  (:predicates
    (p0))
  (:functions
    (v0)
    (v1)
    (v2))
  (:action a0
    :parameters ()
    :precondition (and)
    :effect (and
      (increase (v0) 5)))
  (:action a1
    :parameters ()
    :precondition (and
      (>= (+ (* 1 (v0)) 0) 4))
    :effect (and
      (increase (v1) 3)
      (decrease (v0) 4)))
  (:action a2
    :parameters ()
    :precondition (and
      (>= (+ (* 1 (v0)) 0) 1))
    :effect (and
      (increase (v2) 1)
      (decrease (v0) 1)))
  (:action a3
    :parameters ()
    :precondition (and
      (>= (+ (* 1 (v2)) 0) 3))
    :effect (and
      (p0)
      (decrease (v2) 3))))
