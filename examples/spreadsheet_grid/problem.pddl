(define (problem start)
  (:domain campaign)
  (:init
    (= (v0) 0)
    (= (v1) 0)
    (= (v2) 0)
    (= (v3) 0))
  (:goal (and
    (p0)
    (>= (+ (* 1 (v0)) (+ (* 0 (v1)) (+ (* 0 (v2)) (+ (* 0 (v3)) 0)))) 10))))
