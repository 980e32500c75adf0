(define (domain campaign)
  (:requirements :strips :fluents)
  (:predicates
    (p0)
    (p1)
    (p2)
    (p3)
    (p4))
  (:functions
    (v0)
    (v1)
    (v2)
    (v3)
    (v4)
    (v5)
    (v6)
    (v7))
  (:action a0
    :parameters ()
    :precondition (and)
    :effect (and
      (increase (v0) 20)))
  (:action a1
    :parameters ()
    :precondition (and)
    :effect (and
      (p0)
      (not (p1))))
  (:action a2
    :parameters ()
    :precondition (and
      (= (+ (* 1 (v1)) 0) 0))
    :effect (and
      (p1)
      (not (p0))))
  (:action a3
    :parameters ()
    :precondition (and
      (>= (+ (* 1 (v0)) 0) 5))
    :effect (and
      (p2)
      (decrease (v0) 5)))
  (:action a4
    :parameters ()
    :precondition (and
      (>= (+ (* 1 (v0)) 0) 5))
    :effect (and
      (p3)
      (decrease (v0) 5)))
  (:action a5
    :parameters ()
    :precondition (and)
    :effect (and
      (not (p2))
      (not (p3))))
  (:action a6
    :parameters ()
    :precondition (and
      (p2)
      (>= (+ (* 1 (v0)) 0) 1)
      (<= (+ (* 1 (v2)) (+ (* -1 (v3)) 0)) 10))
    :effect (and
      (increase (v2) 10)
      (decrease (v0) 1)))
  (:action a7
    :parameters ()
    :precondition (and
      (p3)
      (>= (+ (* 1 (v0)) 0) 1)
      (<= (+ (* -1 (v2)) (+ (* 1 (v3)) 0)) 10))
    :effect (and
      (increase (v3) 10)
      (decrease (v0) 1)))
  (:action a8
    :parameters ()
    :precondition (and)
    :effect (and
      (assign (v2) 0)
      (assign (v3) 0)))
  (:action a9
    :parameters ()
    :precondition (and
      (p0)
      (< (+ (* 1 (v1)) 0) 4))
    :effect (and
      (increase (v1) 1)))
  (:action a10
    :parameters ()
    :precondition (and
      (>= (+ (* 1 (v1)) 0) 1))
    :effect (and
      (decrease (v1) 1)))
  (:action a11
    :parameters ()
    :precondition (and)
    :effect (and
      (assign (v4) (+ (* 4 (v2)) 30))))
  (:action a12
    :parameters ()
    :precondition (and)
    :effect (and
      (assign (v5) (+ (* 4 (v3)) 30))))
  (:action a13
    :parameters ()
    :precondition (and
      (>= (+ (* 1 (v0)) 0) 2))
    :effect (and
      (p4)
      (decrease (v0) 2)))
  (:action a14
    :parameters ()
    :precondition (and
      (p4)
      (>= (+ (* 1 (v1)) 0) 2)
      (>= (+ (* 1 (v4)) 0) 200)
      (>= (+ (* 1 (v5)) 0) 200)
      (>= (+ (* 1 (v0)) 0) 1))
    :effect (and
      (increase (v6) 1)
      (decrease (v0) 1)))
  (:action a15
    :parameters ()
    :precondition (and
      (>= (+ (* 1 (v6)) 0) 3)
      (>= (+ (* 1 (v0)) 0) 2))
    :effect (and
      (increase (v7) 3)
      (decrease (v6) 3)
      (decrease (v0) 2))))
