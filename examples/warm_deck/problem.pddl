(define (problem start)
  (:domain campaign)
  (:init
    (= (v0) 0)
    (= (v1) 31)
    (= (v2) 0))
  (:goal (and
    (p0)
    (>= (+ (* 1 (v0)) 0) 2)
    (= (+ (* 1 (v1)) 0) 20)
    (>= (+ (* 1 (v2)) 0) 1))))
