(let [x 3] (println x 4))
