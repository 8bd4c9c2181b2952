; Quicksort of a list: what is smaller than the first number, this number, and the others.
(data nat Z (S nat))
(data bool False True)
(data list Nil (Cons nat list))
(data lists (Two list list))

(fun less ((x nat) (y nat)) bool
  (match y
    (Z False)
    ((S y_before)
      (match x
        (Z True)
        ((S x_before) (less x_before y_before))))))

(fun append ((xs list) (ys list)) list
  (match xs
    (Nil ys)
    ((Cons x rest) (Cons x (append rest ys)))))

; The numbers of a list that are smaller than the pivot, and the others.
(fun partition ((xs list) (pivot nat)) lists
  (match xs
    (Nil (Two Nil Nil))
    ((Cons x rest)
      (match (partition rest pivot)
        ((Two smaller others)
          (match (less x pivot)
            (True (Two (Cons x smaller) others))
            (False (Two smaller (Cons x others)))))))))

(fun quicksort ((xs list)) list
  (match xs
    (Nil Nil)
    ((Cons pivot rest)
      (match (partition rest pivot)
        ((Two smaller others)
          (append (quicksort smaller) (Cons pivot (quicksort others))))))))

(main list
  (quicksort (Cons 3 (Cons 1 (Cons 4 (Cons 1 (Cons 5 (Cons 2 Nil))))))))
