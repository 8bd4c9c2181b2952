; Sums of binary numbers. A number is its lowest digit and the number of the others; the carry is a digit too.
(data digit Zero One)
(data binary End (Digit digit binary))

(fun exclusive_or ((x digit) (y digit)) digit
  (match x
    (Zero y)
    (One (match y (Zero One) (One Zero)))))

(fun majority ((x digit) (y digit) (z digit)) digit
  (match x
    (Zero (match y (Zero Zero) (One z)))
    (One (match y (Zero z) (One One)))))

; A number and a carry.
(fun with_carry ((x binary) (carry digit)) binary
  (match carry
    (Zero x)
    (One
      (match x
        (End (Digit One End))
        ((Digit low rest)
          (match low
            (Zero (Digit One rest))
            (One (Digit Zero (with_carry rest One)))))))))

(fun sum ((x binary) (y binary) (carry digit)) binary
  (match x
    (End (with_carry y carry))
    ((Digit x_low x_rest)
      (match y
        (End (with_carry x carry))
        ((Digit y_low y_rest)
          (Digit (exclusive_or x_low (exclusive_or y_low carry))
            (sum x_rest y_rest (majority x_low y_low carry))))))))

; 11 and 13 are 24.
(main binary
  (let eleven (Digit One (Digit One (Digit Zero (Digit One End))))
    (let thirteen (Digit One (Digit Zero (Digit One (Digit One End))))
      (sum eleven thirteen Zero))))
