(define (domain campaign)
  (:requirements :strips :fluents)
  (:predicates
    (p0)
    (p1)
    (p2))
  (:functions
    (v0)
    (v1))
  (:action a0
    :parameters ()
    :precondition (and)
    :effect (and
      (increase (v0) 6)))
  (:action a1
    :parameters ()
    :precondition (and)
    :effect (and
      (p0)))
  (:action a2
    :parameters ()
    :precondition (and
      (p0))
    :effect (and
      (p1)))
  (:action a3
    :parameters ()
    :precondition (and
      (p1)
      (>= (+ (* 1 (v0)) 0) 2))
    :effect (and
      (increase (v1) 1)
      (decrease (v0) 2)))
  (:action a4
    :parameters ()
    :precondition (and
      (>= (+ (* 1 (v1)) 0) 4))
    :effect (and
      (p2)
      (decrease (v1) 4)))
  (:action a5
    :parameters ()
    :precondition (and)
    :effect (and
      (increase (v0) 0))))
