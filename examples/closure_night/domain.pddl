(define (domain campaign)
  (:requirements :strips :fluents)
  (:predicates
    (p0)
    (p1)
    (p2)
    (p3))
  (:functions
    (v0)
    (v1))
  (:action a0
    :parameters ()
    :precondition (and)
    :effect (and
      (p0)))
  (:action a1
    :parameters ()
    :precondition (and
      (p0))
    :effect (and
      (increase (v0) 20)))
  (:action a2
    :parameters ()
    :precondition (and
      (>= (+ (* 1 (v0)) 0) 40))
    :effect (and
      (increase (v1) 1)))
  (:action a3
    :parameters ()
    :precondition (and
      (>= (+ (* 1 (v1)) 0) 2))
    :effect (and
      (p1)))
  (:action a4
    :parameters ()
    :precondition (and
      (p1))
    :effect (and
      (p2)
      (assign (v0) 0)))
  (:action a5
    :parameters ()
    :precondition (and
      (p2))
    :effect (and
      (p3)
      (not (p0)))))
