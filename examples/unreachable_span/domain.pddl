(define (domain campaign)
  (:requirements :strips :fluents)
  (:predicates
    (p0))
  (:functions
    (v0)
    (v1))
  (:action a0
    :parameters ()
    :precondition (and)
    :effect (and
      (assign (v0) (+ (* 2 (v1)) 2))))
  (:action a1
    :parameters ()
    :precondition (and
      (>= (+ (* 1 (v0)) 0) 20))
    :effect (and
      (p0))))
