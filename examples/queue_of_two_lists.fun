; A queue is two lists: one is taken from its front, and what is pushed goes to the front of the other one, which is reversed when the first is
; empty. So a push and a pop take few interactions on average.
(data nat Z (S nat))
(data list Nil (Cons nat list))
(data queue (Queue list list))
(data popped Empty (Popped nat queue))

(fun reverse ((xs list) (done list)) list
  (match xs
    (Nil done)
    ((Cons x rest) (reverse rest (Cons x done)))))

(fun push ((x nat) (q queue)) queue
  (match q
    ((Queue front back) (Queue front (Cons x back)))))

(fun pop ((q queue)) popped
  (match q
    ((Queue front back)
      (match front
        ((Cons x rest) (Popped x (Queue rest back)))
        (Nil
          (match (reverse back Nil)
            (Nil Empty)
            ((Cons x rest) (Popped x (Queue rest Nil)))))))))

; All numbers of a queue, the first one first. It matches no parameter, but what `pop` gives.
(fun drain ((q queue)) list
  (match (pop q)
    (Empty Nil)
    ((Popped x rest) (Cons x (drain rest)))))

(main list
  (let q (push 3 (push 2 (push 1 (Queue Nil Nil))))
    (match (pop q)
      (Empty Nil)
      ((Popped first rest) (Cons first (drain (push 5 (push 4 rest))))))))
