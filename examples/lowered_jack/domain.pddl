(define (domain campaign)
  (:requirements :strips :fluents)
  (:functions
    (v0))
  (:action a0
    :parameters ()
    :precondition (and)
    :effect (and
      (decrease (v0) 1))))
