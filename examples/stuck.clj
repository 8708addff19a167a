; Two tasks that wait for one another: each puts before it takes, and neither channel has a buffer.
(def left (chan))
(def right (chan))

(go-loop [n 0]
  (>! left n)
  (recur (+ n (<! right))))

(println (<!! left))
(>!! right 1)
(println (<!! left))
(>!! right 1)
(>!! right 1)
(println "never printed")
