; No model: what is and-ed from w and others is not above w.
(set-logic QF_BV)
(declare-const x (_ BitVec 2))
(declare-const y (_ BitVec 2))
(declare-const z (_ BitVec 2))
(declare-const w (_ BitVec 2))
(assert (= z (bvand x y w)))
(assert (bvult w z))
(check-sat)
