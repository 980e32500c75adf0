(define (domain campaign)
  (:requirements :strips :fluents)
  (:functions
    (v0)
    (v1)
    (v2))
  (:action a0
    :parameters ()
    :precondition (and
      (>= (+ (* 1 (v2)) 0) 1)
      (<= (+ (* 1 (v0)) (+ (* -1 (v1)) 0)) 0))
    :effect (and
      (increase (v0) 1)
      (decrease (v2) 1)))
  (:action a1
    :parameters ()
    :precondition (and
      (>= (+ (* 1 (v2)) 0) 1)
      (<= (+ (* -1 (v0)) (+ (* 1 (v1)) 0)) 0))
    :effect (and
      (increase (v1) 1)
      (decrease (v2) 1))))
