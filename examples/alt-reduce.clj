; A till: it adds what comes on `sales`, answers who asks on `totals`, and ends when it is told to.
(def sales (chan))
(def totals (chan))
(def closing (chan))

(def till
  (go-loop [total 0]
    (alt!
      closing :closed
      sales ([price] (recur (+ total price)))
      [[totals total]] (recur total))))

(>!! sales 5)
(>!! sales 7)
(println "so far" (<!! totals))
(println "a fold of the same" (<!! (reduce + 0 (to-chan! [5 7]))))
(close! closing)
(println (<!! till))
