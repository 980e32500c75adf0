(define (domain campaign)
  (:requirements :strips :fluents)
  (:predicates
    (p0)
    (p1))
  (:functions
    (v0)
    (v1))
  (:action a0
    :parameters ()
    :precondition (and
      (p1))
    :effect (and
      (increase (v0) 5)))
  (:action a1
    :parameters ()
    :precondition (and)
    :effect (and
      (increase (v0) 2)))
  (:action a2
    :parameters ()
    :precondition (and)
    :effect (and
      (increase (v0) 3)))
  (:action a3
    :parameters ()
    :precondition (and)
    :effect (and
      (increase (v0) (+ (* 1 (v1)) 0))))
  (:action a4
    :parameters ()
    :precondition (and)
    :effect (and
      (assign (v0) 6)))
  (:action a5
    :parameters ()
    :precondition (and)
    :effect (and
      (assign (v0) 4)))
  (:action a6
    :parameters ()
    :precondition (and)
    :effect (and
      (p1)))
  (:action a7
    :parameters ()
    :precondition (and
      (>= (+ (* 1 (v0)) 0) 6))
    :effect (and
      (p0))))
