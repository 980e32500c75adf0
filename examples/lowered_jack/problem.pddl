(define (problem start)
  (:domain campaign)
  (:init
    (= (v0) 0))
  (:goal (and
    (< (+ (* 1 (v0)) 0) 0))))
