(def none (chan))
(defn f [x] (mod (+ (* x 37) 11) 1000))
(println (loop [i 0 s 0]
  (if (< i 100000) (recur (inc i) (if (< i 0) (<!! none) (+ s (f i)))) s)))
