(def none (chan))
(println (loop [i 0 s 0]
  (if (< i 100000) (recur (inc i) (if (< i 0) (<!! none) (+ s (if (= "7" (str i)) 1 0)))) s)))
