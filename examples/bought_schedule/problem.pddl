(define (problem start)
  (:domain campaign)
  (:init
    (p1)
    (= (v0) 200000)
    (= (v1) 8)
    (= (v2) 0)
    (= (v3) 0))
  (:goal (and
    (p2)
    (= (+ (* 1 (v2)) 0) 0)
    (>= (+ (* 1 (v0)) 0) 100000))))
