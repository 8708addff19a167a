; A mult gives each value to every tap; the next one is taken when all have it.
(def news (chan))
(def copies (mult news))
(def readers [(tap copies (chan)) (tap copies (chan))])
(def logs [(into [] (nth readers 0)) (reduce + 0 (nth readers 1))])

(doseq [n [3 1 4 1 5]]
  (>!! news n))
(close! news)

(println "one reader saw" (<!! (nth logs 0)))
(println "the other's sum is" (<!! (nth logs 1)))
