(define (problem start)
  (:domain campaign)
  (:init
    (= (v0) 0)
    (= (v1) 0)
    (= (v2) 8))
  (:goal (and
    (>= (+ (* 1 (v0)) 0) 3)
    (>= (+ (* 1 (v1)) 0) 3)
    (= (+ (* 1 (v0)) (+ (* -1 (v1)) 0)) 0))))
