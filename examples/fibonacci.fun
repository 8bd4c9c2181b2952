; Fibonacci's numbers by two calls, as the definition has them.
(data nat Z (S nat))

(fun add ((x nat) (y nat)) nat
  (match x
    (Z y)
    ((S before) (S (add before y)))))

(fun fibonacci ((n nat)) nat
  (match n
    (Z 0)
    ((S before)
      (match before
        (Z 1)
        ((S two_before) (add (fibonacci before) (fibonacci two_before)))))))

(main nat (fibonacci 9))
