; Functions that bench/run --new compiles and measures, each by a `main` of its own: programs as people write them, tuned for nothing.
(data nat Z (S nat))
(data bool False True)
(data list Nil (Cons nat list))
(data lists (Two list list))
(data queue (Queue list list))
(data popped Empty (Popped nat queue))
(data tree Leaf (Node tree nat tree))
(data digit Zero One)
(data binary End (Digit digit binary))
(data pair (Pair nat nat))
(data formula (Number nat) (Sum formula formula) (Product formula formula) (Less formula formula formula formula))

; ---- numbers
(fun add ((x nat) (y nat)) nat (match x (Z y) ((S before) (S (add before y)))))
(fun mul ((x nat) (y nat)) nat (match x (Z Z) ((S before) (add y (mul before y)))))
(fun less ((x nat) (y nat)) bool (match y (Z False) ((S y1) (match x (Z True) ((S x1) (less x1 y1))))))
(fun minus ((x nat) (y nat)) nat (match y (Z x) ((S y1) (match x (Z Z) ((S x1) (minus x1 y1))))))
(fun modulo ((x nat) (y nat)) nat (match (less x y) (True x) (False (modulo (minus x y) y))))
(fun halves ((x nat)) pair (match x (Z (Pair 0 0)) ((S x1) (match (halves x1) ((Pair half odd) (match odd (Z (Pair half 1)) ((S _) (Pair (S half) 0))))))))
(fun parity ((x nat)) nat (match x (Z 0) ((S x1) (match x1 (Z 1) ((S x2) (parity x2))))))

; ---- lists
(fun append ((xs list) (ys list)) list (match xs (Nil ys) ((Cons x rest) (Cons x (append rest ys)))))
(fun reverse ((xs list) (done list)) list (match xs (Nil done) ((Cons x rest) (reverse rest (Cons x done)))))
(fun length ((xs list)) nat (match xs (Nil 0) ((Cons _ rest) (S (length rest)))))
(fun total ((xs list)) nat (match xs (Nil 0) ((Cons x rest) (add x (total rest)))))
(fun up_to ((n nat)) list (match n (Z Nil) ((S m) (Cons (S m) (up_to m)))))
; So many numbers below 31, as if by chance.
(fun some ((n nat) (seed nat)) list (match n (Z Nil) ((S m) (Cons seed (some m (modulo (add 7 (mul 3 seed)) 31))))))
; How many steps of a list rise: 0 for few, so that little is printed.
(fun descents ((xs list)) nat (match xs (Nil 0) ((Cons x rest) (match rest (Nil 0) ((Cons y _) (match (less y x) (True (S (descents rest))) (False (descents rest))))))))

; ---- Fibonacci's numbers, Takeuchi's function, Collatz' steps
(fun fibonacci ((n nat)) nat (match n (Z 0) ((S m) (match m (Z 1) ((S k) (add (fibonacci m) (fibonacci k)))))))
(fun before ((x nat)) nat (match x (Z 0) ((S y) y)))
(fun takeuchi ((x nat) (y nat) (z nat)) nat
  (match (less y x) (False z) (True (takeuchi (takeuchi (before x) y z) (takeuchi (before y) z x) (takeuchi (before z) x y)))))
(fun collatz ((n nat) (fuel nat)) nat
  (match fuel (Z 0) ((S less_fuel) (match (less n 2) (True 0) (False (match (halves n) ((Pair half odd) (match odd
    (Z (S (collatz half less_fuel))) ((S _) (S (collatz (S (mul 3 n)) less_fuel)))))))))))
(fun collatz_of_all ((n nat)) nat (match n (Z 0) ((S m) (parity (add (collatz (S m) 150) (collatz_of_all m))))))

; ---- sorting
(fun partition ((xs list) (pivot nat)) lists
  (match xs (Nil (Two Nil Nil)) ((Cons x rest) (match (partition rest pivot) ((Two smaller others)
    (match (less x pivot) (True (Two (Cons x smaller) others)) (False (Two smaller (Cons x others)))))))))
(fun quicksort ((xs list)) list
  (match xs (Nil Nil) ((Cons x rest) (match (partition rest x) ((Two smaller others) (append (quicksort smaller) (Cons x (quicksort others))))))))
(fun split ((xs list)) lists (match xs (Nil (Two Nil Nil)) ((Cons x rest) (match (split rest) ((Two one other) (Two (Cons x other) one))))))
(fun merge ((xs list) (ys list)) list
  (match xs (Nil ys) ((Cons x xs1) (match ys (Nil xs) ((Cons y ys1) (match (less x y) (True (Cons x (merge xs1 ys))) (False (Cons y (merge xs ys1)))))))))
(fun merge_sort ((xs list)) list
  (match xs (Nil Nil) ((Cons x rest) (match rest (Nil xs) ((Cons _ _) (match (split xs) ((Two one other) (merge (merge_sort one) (merge_sort other)))))))))

; ---- a queue of two lists, and a search tree
(fun push ((x nat) (q queue)) queue (match q ((Queue front back) (Queue front (Cons x back)))))
(fun pop ((q queue)) popped
  (match q ((Queue front back) (match front ((Cons x rest) (Popped x (Queue rest back))) (Nil (match (reverse back Nil) (Nil Empty) ((Cons x rest) (Popped x (Queue rest Nil)))))))))
(fun rounds ((n nat) (q queue)) nat (match n (Z 0) ((S m) (match (pop q) (Empty 1) ((Popped x rest) (rounds m (push x (push x (match (pop rest) (Empty (Queue Nil Nil)) ((Popped _ others) others))))))))))
(fun insert ((x nat) (t tree)) tree
  (match t (Leaf (Node Leaf x Leaf)) ((Node l y r) (match (less x y) (True (Node (insert x l) y r)) (False (Node l y (insert x r)))))))
(fun planted ((xs list) (t tree)) tree (match xs (Nil t) ((Cons x rest) (planted rest (insert x t)))))
(fun flattened ((t tree) (more list)) list (match t (Leaf more) ((Node l x r) (flattened l (Cons x (flattened r more))))))
(fun grow ((n nat)) tree (match n (Z Leaf) ((S m) (let t (grow m) (Node t m t)))))
(fun height ((t tree)) nat (match t (Leaf 0) ((Node l _ r) (S (greater (height l) (height r))))))
(fun greater ((x nat) (y nat)) nat (match x (Z y) ((S x1) (match y (Z x) ((S y1) (S (greater x1 y1)))))))

; ---- binary numbers
(fun next ((x binary)) binary (match x (End (Digit One End)) ((Digit low rest) (match low (Zero (Digit One rest)) (One (Digit Zero (next rest)))))))
(fun with_carry ((x binary) (carry digit)) binary (match carry (Zero x) (One (next x))))
(fun exclusive_or ((x digit) (y digit)) digit (match x (Zero y) (One (match y (Zero One) (One Zero)))))
(fun majority ((x digit) (y digit) (z digit)) digit (match x (Zero (match y (Zero Zero) (One z))) (One (match y (Zero z) (One One)))))
(fun plus ((x binary) (y binary) (carry digit)) binary
  (match x (End (with_carry y carry)) ((Digit x1 xs) (match y (End (with_carry x carry)) ((Digit y1 ys)
    (Digit (exclusive_or x1 (exclusive_or y1 carry)) (plus xs ys (majority x1 y1 carry))))))))
(fun times ((x binary) (y binary)) binary (match x (End End) ((Digit low rest) (let more (Digit Zero (times rest y)) (match low (Zero more) (One (plus y more Zero)))))))
(fun counted ((n nat) (x binary)) binary (match n (Z x) ((S m) (counted m (next x)))))
(fun factorial ((n nat) (x binary) (all binary)) binary (match n (Z all) ((S m) (factorial m (next x) (times x all)))))
(fun digits ((x binary)) nat (match x (End 0) ((Digit _ rest) (S (digits rest)))))

; ---- queens on a board, and formulas
(fun differs ((x nat) (y nat)) bool (match x (Z (match y (Z False) ((S _) True))) ((S x1) (match y (Z True) ((S y1) (differs x1 y1))))))
(fun both ((x bool) (y bool)) bool (match x (True y) (False False)))
(fun safe ((queen nat) (others list) (far nat)) bool
  (match others (Nil True) ((Cons other rest) (both (both (differs queen other) (both (differs queen (add other far)) (differs (add queen far) other))) (safe queen rest (S far))))))
(fun queens ((rows nat) (size nat) (board list)) nat (match rows (Z 1) ((S rest) (placed size rest size board))))
(fun placed ((column nat) (rest nat) (size nat) (board list)) nat
  (match column (Z 0) ((S c) (add (match (safe c board 1) (True (queens rest size (Cons c board))) (False 0)) (placed c rest size board)))))
(fun formula_of ((n nat)) formula (match n (Z (Number 2)) ((S m) (let f (formula_of m) (Less f (Sum f (Number 1)) (Sum (Number 1) (Product (Number 1) f)) (Number 0))))))
(fun value ((f formula)) nat
  (match f ((Number n) n) ((Sum f g) (add (value f) (value g))) ((Product f g) (mul (value f) (value g)))
    ((Less f g h i) (match (less (value f) (value g)) (True (value h)) (False (value i))))))
