; A tree is folded in two ways: the sum of its numbers, and its height.
(data nat Z (S nat))
(data tree Leaf (Node tree nat tree))
(data pair (Pair nat nat))

(fun add ((x nat) (y nat)) nat
  (match x
    (Z y)
    ((S before) (S (add before y)))))

(fun greater ((x nat) (y nat)) nat
  (match x
    (Z y)
    ((S x_before)
      (match y
        (Z (S x_before))
        ((S y_before) (S (greater x_before y_before)))))))

(fun sum ((t tree)) nat
  (match t
    (Leaf 0)
    ((Node left n right) (add (sum left) (add n (sum right))))))

(fun height ((t tree)) nat
  (match t
    (Leaf 0)
    ((Node left _ right) (S (greater (height left) (height right))))))

(main pair
  (let t (Node (Node Leaf 1 Leaf) 2 (Node (Node Leaf 3 Leaf) 4 Leaf))
    (Pair (sum t) (height t))))
