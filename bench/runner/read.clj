(def none (chan))
(def v (loop [i 0 v []] (if (< i 1000) (recur (inc i) (conj v i)) v)))
(println (loop [i 0 s 0]
  (if (< i 100000) (recur (inc i) (if (< i 0) (<!! none) (+ s (nth v (mod i 1000))))) s)))
