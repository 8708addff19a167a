; Eight jobs work side by side, and the outputs still come in the order of the inputs.
(defn steps [n]
  (loop [n n k 0]
    (if (= n 1)
      k
      (recur (if (even? n) (quot n 2) (inc (* 3 n))) (inc k)))))

(def numbers (chan))
(def results (chan 4))
(pipeline 8 results (map steps) numbers)
(onto-chan! numbers [27 1 97 6 871])

(println (<!! (into [] results)))
