(def none (chan))
(println (loop [i 0 v []]
  (if (< i 4096) (recur (inc i) (if (< i 0) (<!! none) (conj v i))) (count v))))
