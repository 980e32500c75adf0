(define (domain campaign)
  (:requirements :strips :fluents)
  (:predicates
    (p0))
  (:functions
    (v0)
    (v1))
  (:action a0
    :parameters ()
    :precondition (and)
    :effect (and
      (increase (v0) 5)))
  (:action a1
    :parameters ()
    :precondition (and
      (>= (+ (* 1 (v0)) 0) 3))
    :effect (and
      (increase (v1) 2)
      (decrease (v0) 3)))
  (:action a2
    :parameters ()
    :precondition (and
      (>= (+ (* 1 (v0)) 0) 10))
    :effect (and
      (p0))))
