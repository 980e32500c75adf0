(define (domain campaign)
  (:requirements :strips :fluents)
  (:predicates
    (p0)
    (p1)
    (p2))
  (:functions
    (v0)
    (v1)
    (v2)
    (v3))
  (:action a0
    :parameters ()
    :precondition (and)
    :effect (and
      (increase (v0) 300000)))
  (:action a1
    :parameters ()
    :precondition (and
      (p1))
    :effect (and
      (p0)
      (not (p1))))
  (:action a2
    :parameters ()
    :precondition (and
      (p0)
      (>= (+ (* 1 (v0)) 0) 200000))
    :effect (and
      (decrease (v0) 200000)
      (increase (v1) 6)))
  (:action a3
    :parameters ()
    :precondition (and
      (p0))
    :effect (and
      (p1)
      (not (p0))))
  (:action a4
    :parameters ()
    :precondition (and)
    :effect (and
      (increase (v2) 20)))
  (:action a5
    :parameters ()
    :precondition (and)
    :effect (and
      (assign (v2) 0)))
  (:action a6
    :parameters ()
    :precondition (and
      (p1)
      (>= (+ (* 1 (v1)) 0) 20)
      (>= (+ (* 1 (v2)) 0) 40)
      (>= (+ (* 1 (v0)) 0) 10000))
    :effect (and
      (decrease (v0) 10000)
      (increase (v3) 1)))
  (:action a7
    :parameters ()
    :precondition (and
      (>= (+ (* 1 (v3)) 0) 3)
      (>= (+ (* 1 (v0)) 0) 50000))
    :effect (and
      (p2)
      (decrease (v0) 50000)
      (assign (v3) 0))))
