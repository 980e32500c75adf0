(define (problem start)
  (:domain campaign)
  (:init
    (= (v0) 0)
    (= (v1) 0))
  (:goal (and
    (p3)
    (= (+ (* 1 (v0)) 0) 0))))
