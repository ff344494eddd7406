;; Starts `srb lsp' for Ruby files, with the project's folder. `srb' is on the PATH.
(require 'eglot)
(add-to-list 'eglot-server-programs
             '(ruby-mode . (lambda (&rest _) (list "srb" "lsp" (expand-file-name (project-root (project-current)))))))
(add-hook 'ruby-mode-hook 'eglot-ensure)
