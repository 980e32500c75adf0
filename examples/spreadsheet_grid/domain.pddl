(define (domain campaign)
  (:requirements :strips :fluents)
  (:predicates
    (p0))
  (:functions
    (v0)
    (v1)
    (v2)
    (v3))
  (:action a0
    :parameters ()
    :precondition (and)
    :effect (and
      (increase (v0) (+ (* 0 (v0)) (+ (* 0 (v1)) (+ (* 0 (v2)) (+ (* 0 (v3)) 5)))))))
  (:action a1
    :parameters ()
    :precondition (and
      (>= (+ (* 1 (v0)) (+ (* 0 (v1)) (+ (* 0 (v2)) (+ (* 0 (v3)) 0)))) 3))
    :effect (and
      (increase (v1) (+ (* 0 (v0)) (+ (* 0 (v1)) (+ (* 0 (v2)) (+ (* 0 (v3)) 2)))))
      (decrease (v0) (+ (* 0 (v0)) (+ (* 0 (v1)) (+ (* 0 (v2)) (+ (* 0 (v3)) 3)))))))
  (:action a2
    :parameters ()
    :precondition (and
      (>= (+ (* 1 (v0)) (+ (* 0 (v1)) (+ (* 0 (v2)) (+ (* 0 (v3)) 0)))) 1))
    :effect (and
      (assign (v2) (+ (* 0 (v0)) (+ (* 4 (v1)) (+ (* 0 (v2)) (+ (* 0 (v3)) 1)))))))
  (:action a3
    :parameters ()
    :precondition (and
      (>= (+ (* 0 (v0)) (+ (* 0 (v1)) (+ (* 1 (v2)) (+ (* 0 (v3)) 0)))) 21)
      (= (+ (* 0 (v0)) (+ (* 4 (v1)) (+ (* -1 (v2)) (+ (* 0 (v3)) 0)))) -1)
      (>= (+ (* 1 (v0)) (+ (* 0 (v1)) (+ (* 0 (v2)) (+ (* 0 (v3)) 0)))) 2))
    :effect (and
      (increase (v3) (+ (* 0 (v0)) (+ (* 0 (v1)) (+ (* 0 (v2)) (+ (* 0 (v3)) 1)))))
      (decrease (v0) (+ (* 0 (v0)) (+ (* 0 (v1)) (+ (* 0 (v2)) (+ (* 0 (v3)) 2)))))))
  (:action a4
    :parameters ()
    :precondition (and
      (>= (+ (* 0 (v0)) (+ (* 0 (v1)) (+ (* 0 (v2)) (+ (* 1 (v3)) 0)))) 3))
    :effect (and
      (p0)
      (decrease (v3) (+ (* 0 (v0)) (+ (* 0 (v1)) (+ (* 0 (v2)) (+ (* 1 (v3)) 0))))))))
