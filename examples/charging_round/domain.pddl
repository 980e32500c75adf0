(define (domain campaign)
  (:requirements :strips :fluents)
  (:predicates
    (p0)
    (p1))
  (:functions
    (v0)
    (v1))
  (:action a0
    :parameters ()
    :precondition (and)
    :effect (and
      (increase (v0) 5)))
  (:action a1
    :parameters ()
    :precondition (and
      (>= (+ (* 1 (v0)) 0) 3))
    :effect (and
      (p0)
      (decrease (v0) 1)))
  (:action a2
    :parameters ()
    :precondition (and
      (p0)
      (> (+ (* 1 (v0)) 0) 1))
    :effect (and
      (increase (v1) 1)
      (decrease (v0) 2)))
  (:action a3
    :parameters ()
    :precondition (and
      (p0)
      (>= (+ (* 1 (v1)) 0) 4))
    :effect (and
      (p1)
      (decrease (v1) 4))))
