(def none (chan))
(println (loop [i 0 m {}]
  (if (< i 100000)
    (recur (inc i) (if (< i 0) (<!! none) (assoc m (mod i 8) (inc (get m (mod i 8) 0)))))
    (get m 3))))
